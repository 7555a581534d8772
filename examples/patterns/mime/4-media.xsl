<?xml version="1.0" encoding="UTF-8"?>
<xsl:stylesheet version="1.0" xmlns:xsl="http://www.w3.org/1999/XSL/Transform"
    xmlns:l="lines" xmlns:m="http://www.freedesktop.org/standards/shared-mime-info" exclude-result-prefixes="m">
  <xsl:import href="../lines.xsl"/>

  <xsl:template match="/" mode="witnesses">
    <xsl:for-each select="/m:mime-info/m:mime-type[starts-with(@type, 'x-content/')]/m:comment[@xml:lang = 'de']/text()">
      <witness>
        <mime-info>
          <mime-type>
            <l:attribute name="type"/>
            <comment>
              <l:attribute name="xml:lang"/>
              <xsl:value-of select="."/>
            </comment>
            <xsl:for-each select="../..//m:treematch">
              <treematch>
                <xsl:apply-templates select="@path" mode="shown"/>
                <xsl:apply-templates select="@executable" mode="shown"/>
              </treematch>
            </xsl:for-each>
          </mime-type>
        </mime-info>
      </witness>
    </xsl:for-each>
  </xsl:template>
</xsl:stylesheet>
