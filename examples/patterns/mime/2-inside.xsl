<?xml version="1.0" encoding="UTF-8"?>
<xsl:stylesheet version="1.0" xmlns:xsl="http://www.w3.org/1999/XSL/Transform"
    xmlns:m="http://www.freedesktop.org/standards/shared-mime-info" exclude-result-prefixes="m">
  <xsl:import href="../lines.xsl"/>

  <xsl:template match="/" mode="witnesses">
    <xsl:for-each select="//m:mime-type">
      <xsl:variable name="type" select="@type"/>
      <xsl:for-each select=".//m:match">
        <xsl:for-each select=".//m:match">
          <xsl:for-each select=".//m:match[@mask]">
            <witness>
              <mime-type>
                <xsl:apply-templates select="$type" mode="shown"/>
                <match>
                  <match>
                    <match>
                      <xsl:apply-templates select="@mask" mode="shown"/>
                      <xsl:apply-templates select="@value" mode="shown"/>
                    </match>
                  </match>
                </match>
              </mime-type>
            </witness>
          </xsl:for-each>
        </xsl:for-each>
      </xsl:for-each>
    </xsl:for-each>
  </xsl:template>
</xsl:stylesheet>
