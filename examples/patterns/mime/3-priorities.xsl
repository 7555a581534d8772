<?xml version="1.0" encoding="UTF-8"?>
<xsl:stylesheet version="1.0" xmlns:xsl="http://www.w3.org/1999/XSL/Transform"
    xmlns:m="http://www.freedesktop.org/standards/shared-mime-info" exclude-result-prefixes="m">
  <xsl:import href="../lines.xsl"/>

  <xsl:template match="/" mode="witnesses">
    <xsl:for-each select="//m:mime-type[m:magic[@priority &gt; 70]]">
      <witness>
        <mime-type>
          <xsl:apply-templates select="@type" mode="shown"/>
          <xsl:for-each select="m:magic[@priority &gt; 70]">
            <magic>
              <xsl:apply-templates select="@priority" mode="shown"/>
            </magic>
          </xsl:for-each>
          <xsl:for-each select="m:generic-icon">
            <generic-icon>
              <xsl:apply-templates select="@name" mode="shown"/>
            </generic-icon>
          </xsl:for-each>
        </mime-type>
      </witness>
    </xsl:for-each>
  </xsl:template>
</xsl:stylesheet>
